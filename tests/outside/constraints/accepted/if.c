int main(void) { int a = 1; if (a) return 1; return 2; }
