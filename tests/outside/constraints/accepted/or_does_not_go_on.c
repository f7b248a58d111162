int main(void) { int a = 1; 1 || (a = 2); return a; }
