int f(int n, int p[
    n]);
int main(void) { return 0; }
