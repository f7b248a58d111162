int main(void) { int a = 1, b = 0; if (a) if (b) return 1; else return 3; return 4; }
