int main(void) { int a[2][3][4]; a[1][2][3] = 23; return a[1][2][3]; }
