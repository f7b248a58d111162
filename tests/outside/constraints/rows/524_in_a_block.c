int main(void) {
    enum e { A = 2147483647, B };
    return 0;
}
