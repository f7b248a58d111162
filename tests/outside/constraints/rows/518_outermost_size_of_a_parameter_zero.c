int f(int n, int
    p[0]);
int main(void) { return 0; }
