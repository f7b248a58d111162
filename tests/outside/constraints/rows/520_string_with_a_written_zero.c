char s[2] = "ab\0";
int main(void) { return 0; }
