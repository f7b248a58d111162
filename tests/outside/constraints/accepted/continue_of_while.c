int main(void) { int i = 0, n = 0; while (i++ < 10) { if (i % 2) continue; n++; } return n; }
