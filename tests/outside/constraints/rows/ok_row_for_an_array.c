int f(int a[]) { return a[2]; }
int main(void) { int a[2][3] = {{0, 0, 1}, {0, 0, -1}}; return f(a[0]) + f(a[1]); }
