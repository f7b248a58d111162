enum { A };
int f(int a[]);
int main(void) { return f(A); }
