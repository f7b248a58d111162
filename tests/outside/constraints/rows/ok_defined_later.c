extern int x, a[];
static int g(void);
int main(void) { return x + a[1] + g(); }
int x;
static int g(void) { return 0; }
int a[2];
