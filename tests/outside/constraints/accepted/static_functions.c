static int f(int a);
static int g(void) { return 3; }
int main(void) { return f(4) + g(); }
static int f(int a) { return a; }
