int f(int a[]);
int a[2];
int main(void) { return f(a[0]); }
