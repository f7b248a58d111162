int main(void) { int a = 0; if (a) return 1; else return 2; }
