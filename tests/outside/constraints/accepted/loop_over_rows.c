int main(void) {
    char m[3][4] = {{1, 1, 1, 1}, {1, 1, 1, 1}, {1, 1, 1, 1}};
    int n = 0;
    for (unsigned i = 0; i < sizeof m / sizeof m[0]; i++)
        for (unsigned j = 0; j < sizeof m[0]; j++)
            n += m[i][j];
    return n;
}
