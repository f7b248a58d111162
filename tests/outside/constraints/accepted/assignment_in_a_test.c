int next(void) { static int n = 3; return n++; }
int main(void) { int a, b = 0; while ((a = next()) < 8) b++; return b; }
