int main(void) { int a[2] = {4, 3}; a[0] *= 3; a[1]--; return a[0] + a[1]; }
