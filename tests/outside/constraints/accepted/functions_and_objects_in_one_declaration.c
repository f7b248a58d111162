int a = 4, f(int n), b[2] = {1, 2}, g(void);
int f(int n) { return n + a; }
int g(void) { return f(b[1]) + b[0]; }
int main(void) { return g() + 2; }
