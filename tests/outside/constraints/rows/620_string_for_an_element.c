int main(void) {
    char s[2] = {"a", "b"};
    return s[0];
}
