int main(void) { int a = 1; (1, a) = 3; return a; }
