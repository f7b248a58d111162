void f(const int a[]) { a[0] = 1; }
int main(void) { return 0; }
