int f(int a[][3]);
int a[3];
int main(void) { return f(a); }
