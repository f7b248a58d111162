int f(void) { return 0; }
int f(void), f(void);
int main(void) { return f(); }
