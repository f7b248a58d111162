int main(void) {
    char s[2][3] = "ab";
    return s[0][0];
}
