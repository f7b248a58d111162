int f(void);
int main(void) { return f(1); }
