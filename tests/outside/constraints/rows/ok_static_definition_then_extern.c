static int f(void) { return 0; }
extern int f(void);
int f(void);
int main(void) { return f(); }
