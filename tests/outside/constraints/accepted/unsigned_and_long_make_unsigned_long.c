int main(void) { unsigned a = 1; long b = -1; return a + b < a - 0 ? 1 : b > a; }
