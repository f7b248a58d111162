int f(void) { static int n = 1; return ++n; }
int g(void) { static int n = 10; return ++n; }
int main(void) { return f() + g(); }
