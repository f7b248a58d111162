int main(void) { char s[5] = "ab"; return s[2] + s[3] + s[4]; }
