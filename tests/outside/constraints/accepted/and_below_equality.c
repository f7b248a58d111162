int main(void) { int a = 6; return a & (a == 6) ? 3 : 4; }
