int g(void);
int f(void) { return g(); }
int main(void) { return 0; }
