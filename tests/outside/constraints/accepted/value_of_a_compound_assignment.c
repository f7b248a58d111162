int main(void) { int a = 2, b; b = (a += 3) * 2; return b; }
