int f(void) { static int n = 1; return n++; }
int main(void) { return f() + f() + f(); }
