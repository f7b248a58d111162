char s[2][3] = "ab";
int main(void) { return 0; }
