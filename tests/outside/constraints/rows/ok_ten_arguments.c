int f(int a, int b, int c, int d, int e, int g, int h, int i, int j, int k) { return a + b + c + d + e + g + h + i - j * k; }
int main(void) { return f(1, 2, 3, 4, 5, 6, 7, 8, 9, 4); }
