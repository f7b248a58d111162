int f(const int a[][3]);
int main(void) { int a[2][3] = {{1}}; return f(a); }
