int main(void) {
    static char a[][524288] = {{1}, {2}};
    return a[0][0] + a[1][0] - 3;
}
