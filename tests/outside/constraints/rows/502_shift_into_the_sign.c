enum { A = 1 << 31 };
int main(void) { return 0; }
