/* 1: 520 too many initialisers */ int main(void) { char s[3] = "abcd"; return s[2]; }
