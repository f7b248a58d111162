void f(int n) {
    while (n) { if (n--) { return n; } }
}
int main(void) { return 0; }
