int main(void) { int b = 1, a = b, c = a + b; return c - 2; }
