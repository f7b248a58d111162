int f(int n, int a[sizeof n]) { return n + a[3]; }
int main(void) { int a[4] = {0, 0, 0, 3}; return f(1, a); }
