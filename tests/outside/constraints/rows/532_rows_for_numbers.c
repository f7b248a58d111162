int f(int a[]);
int a[2][3];
int main(void) { return f(a); }
