static int f(void);
int f(void);
extern int f(void);
int f(void) { return 0; }
int main(void) { return f(); }
