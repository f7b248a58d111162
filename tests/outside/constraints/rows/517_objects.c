int x = 1;
int
    x = 2;
int main(void) { return 0; }
