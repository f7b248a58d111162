int f(int a) { return a; }
int main(void) { int n = 0; return f((n++, n - 1)); }
