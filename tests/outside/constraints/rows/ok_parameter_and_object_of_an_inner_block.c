int f(int a) { { int a = 1; if (a != 1) return 1; } return a; }
int main(void) { return f(0); }
