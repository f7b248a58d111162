int main(void) {
    static int static x;
    return 0;
}
