char s[2][2] = {
    "ab",
    "abc"
};
int main(void) { return 0; }
