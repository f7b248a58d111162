enum { A = 4294967295ul };
int main(void) { return 0; }
