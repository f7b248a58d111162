int f(int a,
    enum e b);
int main(void) { return 0; }
