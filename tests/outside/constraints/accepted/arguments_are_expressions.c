int add(int a, int b) { return a + b; }
int main(void) { int a = 1; return add(a + 2, add(4, add(a, 4))); }
