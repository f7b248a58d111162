int one(void) { return 1; }
int m =
    one();
int main(void) { return m; }
