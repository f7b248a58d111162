int main(void) { int n = 0; for (int i = 0; i < 8; i++) { if (i & 1) continue; n++; } return n; }
