char s[2] = {
    "abc"
};
int main(void) { return 0; }
