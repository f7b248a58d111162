int f(void);
static int f(void);
int main(void) { return 0; }
