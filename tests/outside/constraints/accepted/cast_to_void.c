int main(void) { int a = 3; (void)a++; return a; }
