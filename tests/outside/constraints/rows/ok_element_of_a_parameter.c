void f(int a[]) { a[0] = 1; }
int main(void) { int a[1]; f(a); return a[0] - 1; }
