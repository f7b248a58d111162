enum {
    A
    = 2147483648u
};
int main(void) { return 0; }
