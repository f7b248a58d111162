int f(long a[]);
int a[2];
int main(void) { return f(a); }
