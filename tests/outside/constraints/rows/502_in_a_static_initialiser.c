int n = 2147483647
    + 1;
int main(void) { return 0; }
