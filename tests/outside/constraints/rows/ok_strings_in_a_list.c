char s[2][3] = {"ab", {"cd"}}, t[][4] = {"a", "bc", "def"};
int main(void) { return (int)sizeof t - 12 + s[1][2]; }
