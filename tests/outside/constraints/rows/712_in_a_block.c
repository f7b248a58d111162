int main(void) {
    static char a[1048577];
    return 0;
}
