int main(void) {
    static int a;
    int a = 0;
    return 0;
}
