int f(int a[]);
int main(void) { return f("abc"); }
