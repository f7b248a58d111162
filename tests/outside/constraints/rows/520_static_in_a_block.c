int main(void) {
    static int a[1] = {1, 2};
    return a[0];
}
