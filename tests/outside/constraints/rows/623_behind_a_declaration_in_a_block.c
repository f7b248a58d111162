int main(void) {
    switch (1) {
        int n;
        { n = 1; default: return n; }
    }
    return 0;
}
