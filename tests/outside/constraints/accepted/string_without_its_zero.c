int main(void) { char s[3] = "abc"; return s[2]; }
