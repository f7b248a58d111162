int f(void) { return 1; }
int main(void) { f() = 2; return 0; }
