int main(void) { char s[] = "abc"; return s[2] + s[3] + s[1] + 1; }
