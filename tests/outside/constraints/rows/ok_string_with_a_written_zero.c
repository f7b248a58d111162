char s[3] = "ab\0", t[] = "a\0b";
int main(void) { return (int)sizeof t - 4 + s[2]; }
