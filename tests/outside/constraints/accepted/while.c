int main(void) { int i = 0, n = 0; while (i < 5) { n += i; i++; } return n; }
