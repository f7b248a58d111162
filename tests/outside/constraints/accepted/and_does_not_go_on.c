int main(void) { int a = 1; 0 && (a = 2); return a; }
