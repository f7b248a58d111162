static int f(void);
extern int f(void);
int f(void) { return 4; }
int main(void) { return f(); }
