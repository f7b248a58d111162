int main(void) {
    const char a = 1;
    a += 2;
    return 0;
}
