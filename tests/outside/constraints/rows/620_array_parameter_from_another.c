void f(int p[], int q[]) { p = q; }
int main(void) { return 0; }
