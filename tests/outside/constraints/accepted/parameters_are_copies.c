int f(int a) { a = 5; return a; }
int main(void) { int a = 1; f(a); return a; }
