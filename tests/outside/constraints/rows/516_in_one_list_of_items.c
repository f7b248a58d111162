int f(void);
static int g(void), f(void);
int main(void) { return 0; }
