int main(void) { int a[4] = {0, 1, 2, 3}; int i = 1; return a[i + a[i] + 1]; }
