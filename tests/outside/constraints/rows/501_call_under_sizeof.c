int f(void);
int a[sizeof(
    f())];
int main(void) { return 0; }
