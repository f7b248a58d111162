int main(void) {
    static int n = 1 / 0;
    return n;
}
