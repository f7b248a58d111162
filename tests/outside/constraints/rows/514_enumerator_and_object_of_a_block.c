int main(void) {
    enum { A };
    int A = 1;
    return 0;
}
