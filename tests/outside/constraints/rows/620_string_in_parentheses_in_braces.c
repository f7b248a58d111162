int main(void) {
    char s[4] = {
        ("abc")};
    return s[0];
}
