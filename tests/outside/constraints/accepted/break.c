int main(void) { int i; for (i = 0; i < 10; i++) if (i == 3) break; return i; }
