int f(int n,
    void p[]);
int main(void) { return 0; }
