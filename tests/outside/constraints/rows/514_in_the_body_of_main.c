int main(void) {
    int a;
    enum { a };
    return 0;
}
