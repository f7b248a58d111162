int f(int a) { return 1; }
int f(void);
int main(void) { return 0; }
