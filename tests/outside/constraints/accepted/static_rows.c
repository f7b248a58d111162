int a[2][3] = {{1, 2}, {3, 4, 5}};
int main(void) { return a[0][0] + a[0][1] + a[0][2] + a[1][2]; }
