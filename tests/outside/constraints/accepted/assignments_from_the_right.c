int main(void) { int a, b, c; a = b = c = 2; return a + b + c; }
