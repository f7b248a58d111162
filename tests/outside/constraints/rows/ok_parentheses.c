int main(void) { int a = 1; (a) = 2; ((a))++; --(a); return a - 2; }
