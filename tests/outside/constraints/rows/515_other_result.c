int f(int a);
long
    f(int a);
int main(void) { return 0; }
