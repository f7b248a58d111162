int f(int a[]);
int g(const int a[]) { return f(a); }
int main(void) { return 0; }
