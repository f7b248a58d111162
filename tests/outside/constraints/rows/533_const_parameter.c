int f(const int a) { a = 2; return a; }
int main(void) { return 0; }
