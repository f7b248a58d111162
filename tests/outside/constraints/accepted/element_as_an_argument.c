int f(int a) { return a; }
int main(void) { int a[2] = {1, 2}; return f(a[1]); }
