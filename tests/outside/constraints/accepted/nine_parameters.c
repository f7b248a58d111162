int f(int a, int b, int c, int d, int e, int g, int h, int i, int j) { return j; }
int main(void) { return f(1, 2, 3, 4, 5, 6, 7, 8, 9); }
