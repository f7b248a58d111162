int f(int a,
    char a[]) { return 0; }
int main(void) { return 0; }
