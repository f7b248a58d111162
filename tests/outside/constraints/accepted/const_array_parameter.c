int f(const int a[]) { return a[0] + a[1]; }
int main(void) { int a[2] = {1, 2}; return f(a); }
