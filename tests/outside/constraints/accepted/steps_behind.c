int main(void) { int a = 2; int b = a++; return a + b; }
