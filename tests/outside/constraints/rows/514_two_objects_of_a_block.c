int main(void) {
    int a = 1;
    long
        a = 2;
    return 0;
}
