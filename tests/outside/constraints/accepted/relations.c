int main(void) { int a = 3, b = 5; return (a < b) + 2 * (a > b) + 4 * (a <= a) + 8 * (b >= a) + 16 * (a == b) + 32 * (a != b); }
