int main(void) { int a[2] = {4, 0}; a[1] = a[0] + 1; return a[0] + a[1]; }
