int main(void) {
    static int a[2] = {
        1,
        2147483647 * 2
    };
    return a[0];
}
