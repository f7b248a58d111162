int f(int g[]) { return g(0); }
int main(void) { return 0; }
