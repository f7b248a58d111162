int main(void) { int a = 0, b = 0; return a ? 1 : b ? 2 : 3; }
