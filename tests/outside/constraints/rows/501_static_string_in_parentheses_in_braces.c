char s[4] = {("abc")};
int main(void) { return 0; }
