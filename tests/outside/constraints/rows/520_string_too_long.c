char s[3] =
    "abcd";
int main(void) { return 0; }
