void f(void) { return (void)0; }
int main(void) { return 0; }
