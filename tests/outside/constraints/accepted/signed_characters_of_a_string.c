int main(void) { signed char s[] = "\377"; return s[0] == -1; }
