enum { A = 2147483647L + 1ul };
int main(void) { return 0; }
