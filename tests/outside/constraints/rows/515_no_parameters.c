int f(void);
int f(int a);
int main(void) { return 0; }
