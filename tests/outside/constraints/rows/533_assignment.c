int main(void) { int a = 1; (a = 2) = 3; return a; }
