int main(void) { int n = 0; for (int i = 0, j = 10; i < j; i++, j--) n++; return n; }
