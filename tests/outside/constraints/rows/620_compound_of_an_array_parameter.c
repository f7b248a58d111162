void f(int p[]) { p += 1; }
int main(void) { return 0; }
