int main(void) { _Bool b = 1; b++; int n = b; b--; return n * 2 + !b; }
