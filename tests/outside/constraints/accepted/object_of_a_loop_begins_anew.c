int main(void) { int n = 0; for (int i = 0; i < 3; i++) { int a = 0; a++; n += a; } return n; }
