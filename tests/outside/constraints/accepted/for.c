int main(void) { int n = 0; for (int i = 0; i < 5; i++) n += i; return n; }
