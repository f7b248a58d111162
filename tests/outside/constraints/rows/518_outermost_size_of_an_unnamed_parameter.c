int f(int n,
    int
    [0]);
int main(void) { return 0; }
