int main(void) {
    int n = 1;
    static int m = n;
    return m;
}
