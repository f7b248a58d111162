int f(int a, void
    b);
int main(void) { return 0; }
