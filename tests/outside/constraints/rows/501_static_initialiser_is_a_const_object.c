const int n = 1;
int m =
    n;
int main(void) { return m; }
