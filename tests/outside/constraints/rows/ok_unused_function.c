int g(void);
extern int h(int a);
static int k(void);
int main(void) { return (int)sizeof(g()) + (int)sizeof(h(1)) + (int)sizeof k() - 12; }
