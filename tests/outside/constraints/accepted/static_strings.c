char s[] = "abc", t[2][4] = {"x", {"yz"}};
int main(void) { return s[0] + t[0][0] - 'b' + 'z' - t[1][1] + 'a' - t[1][2] - 2; }
