char s[2] = {"a", "b"};
int main(void) { return 0; }
