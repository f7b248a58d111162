void f(int p[]) { p++; }
int main(void) { return 0; }
