int n;
void f(int a) { n = a; }
int main(void) { f(3); return n; }
