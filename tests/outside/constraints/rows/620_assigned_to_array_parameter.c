void f(int p[]) { p = 0; }
int main(void) { return 0; }
