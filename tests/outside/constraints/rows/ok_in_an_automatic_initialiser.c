int main(void) {
    if (0) { int n = 2147483647 + 1; return n; }
    return 0;
}
