int f(char a, short b, int c, long d, unsigned char e, unsigned short g, unsigned h, unsigned long i, signed char j, _Bool k, int l, char m) {
    return a + b + c + (int)d + e + g + (int)h + (int)i + j + k + l + m;
}
int main(void) { return f(1, 2, 3, 4, 5, 6, 7, 8, 9, 10, 16, 16); }
