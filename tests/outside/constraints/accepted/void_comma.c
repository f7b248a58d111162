int n;
void f(int a) { n += a; }
int main(void) { f(1), f(2), f(3); return n; }
