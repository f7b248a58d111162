int f(
    const
    char) { return 0; }
int main(void) { return 0; }
