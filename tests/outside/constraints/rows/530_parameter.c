int f(int g) { return g(); }
int main(void) { return 0; }
