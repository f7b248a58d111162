int f(int a);
unsigned
    f(int a) { return 1; }
int main(void) { return 0; }
