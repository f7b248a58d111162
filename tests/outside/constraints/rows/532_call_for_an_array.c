int f(int a[]);
int main(void) { int b[2]; return f(f(b)); }
