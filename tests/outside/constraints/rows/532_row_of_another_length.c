int f(int p[][2]);
int a[2][3][4];
int main(void) { return f(a[0]); }
