int f(unsigned a[]);
int a[2];
int main(void) { return f(a); }
