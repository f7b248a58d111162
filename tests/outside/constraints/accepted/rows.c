int main(void) { int a[2][2] = {{1, 2}, {3, 4}}; return a[0][0] + a[0][1] + a[1][0] + a[1][1]; }
