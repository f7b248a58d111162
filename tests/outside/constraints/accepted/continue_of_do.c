int main(void) { int n = 0; do { n++; if (n < 3) continue; } while (n < 3); return n; }
