int f(int n) { return n ? n * f(n - 1) : 1; }
int main(void) { return f(5); }
