char s[3] = "abc", t[3] = {"abc"}, u[2][2] = {"ab", {"cd"}};
int main(void) { return s[2] + t[0] + u[1][1] - 'a' - 'c' - 'd'; }
