int f(
    int a,
    int) { return a; }
int main(void) { return 0; }
