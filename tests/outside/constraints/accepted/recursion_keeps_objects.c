int f(int n) { int a = n; if (n) { int b = f(n - 1); a += b; } return a; }
int main(void) { return f(5); }
