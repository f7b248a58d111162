int main(void) {
    static char a[][524288] = {{1}, {2}, {3}};
    return a[0][0];
}
