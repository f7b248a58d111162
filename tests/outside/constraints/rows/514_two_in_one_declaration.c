int main(void) {
    int a = 1, b = 2, a = 3;
    return b;
}
