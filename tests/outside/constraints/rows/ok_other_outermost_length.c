int f(int a[5][3]) { return a[1][2]; }
extern int b[][3];
int main(void) { int a[2][3] = {{1}}; return f(a) + f(b); }
int b[2][3];
