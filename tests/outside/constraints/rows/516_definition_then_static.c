int f(void) { return 0; }
static int f(void);
int main(void) { return 0; }
