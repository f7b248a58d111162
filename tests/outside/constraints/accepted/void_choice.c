int n;
void f(void) { n = 5; }
void g(void) { n = 6; }
int main(void) { int a = 1; a ? f() : g(); return n; }
