void v(void) { }
int f(int a[]);
int main(void) { return f(v()); }
