int g(void);
int main(void) { return 1 ? 0 : g(); }
