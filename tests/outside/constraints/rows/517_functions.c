int f(void) { return 0; }
int
    f(void) { return 0; }
int main(void) { return 0; }
