int f(int a,
    long
    long b);
int main(void) { return 0; }
