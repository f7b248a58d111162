int n = 2;
int f(int k) { return k ? f(k - 1) : n; }
int main(void) { return f(3) - 2; }
