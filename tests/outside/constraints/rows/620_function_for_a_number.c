int f(int n) { return n; }
int main(void) { return f(f); }
