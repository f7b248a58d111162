int g(int a[]) { return a[1]; }
int f(int a[]) { return g(a); }
int main(void) { int a[2] = {4, 5}; return f(a); }
