int main(void) {
    int n = 0;
    for (int i = 0; i < 2; i++) { int i = 5; n += i; }
    return n - 10;
}
