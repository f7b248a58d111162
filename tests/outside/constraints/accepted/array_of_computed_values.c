int main(void) { int n = 3; int a[2] = {n, n + 1}; return a[0] + a[1]; }
