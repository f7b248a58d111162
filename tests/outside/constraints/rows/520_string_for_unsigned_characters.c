unsigned char s[1] = "ab";
int main(void) { return 0; }
