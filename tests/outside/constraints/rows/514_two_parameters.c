int f(int a,
    long a);
int main(void) { return 0; }
