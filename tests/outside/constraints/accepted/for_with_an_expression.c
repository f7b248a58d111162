int main(void) { int i, n = 0; for (i = 9; i > 0; --i) n++; return n; }
