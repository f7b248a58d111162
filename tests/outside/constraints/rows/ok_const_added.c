int f(const int a[]) { return a[1]; }
int g(int a[]) { return f(a); }
const int b[2] = {1, 2};
int main(void) { int a[2] = {1, 2}; return f(a) + g(a) + f(b) - 6; }
