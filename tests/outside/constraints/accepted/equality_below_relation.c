int main(void) { int a = 1, b = 2, c = 1; return a < b == c; }
