int f(int p[][4]) { return p[2][3]; }
int a[2][3][4];
int main(void) { return f(a[0]) + f(a[1]); }
