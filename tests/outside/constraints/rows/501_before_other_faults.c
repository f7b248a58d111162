enum { A =
    y
    + 1 / 0 +
    f() };
int main(void) { return 0; }
