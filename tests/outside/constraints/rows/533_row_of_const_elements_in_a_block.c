int main(void) {
    const char s[2][3] = {"ab", "cd"};
    s[1][1]++;
    return 0;
}
