int main(void) { char s[2][3] = {"ab", "cd"}; return s[1][1]; }
