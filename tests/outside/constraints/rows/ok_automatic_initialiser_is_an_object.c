int main(void) {
    int n = 1;
    int m = n;
    return m;
}
