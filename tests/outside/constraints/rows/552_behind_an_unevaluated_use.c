int g(void);
int f(void) { return sizeof(g()) ? 0 : 1; }
int main(void) { return f() + g(); }
