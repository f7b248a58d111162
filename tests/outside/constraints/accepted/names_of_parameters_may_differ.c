int f(int a, int b);
int f(int, int);
int f(int x, int y) { return x - y; }
int main(void) { return f(5, 2); }
