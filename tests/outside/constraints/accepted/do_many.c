int main(void) { int n = 0; do { n++; } while (n < 5); return n; }
