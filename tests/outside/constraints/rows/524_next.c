enum {
    A = 2147483647,
    B
};
int main(void) { return 0; }
