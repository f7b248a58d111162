int f(void) { return 1; }
int main(void) { int f = 8; return f; }
