int f(int a,
    void);
int main(void) { return 0; }
