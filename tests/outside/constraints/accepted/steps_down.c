int main(void) { int a = 3; int b = a--; int c = --a; return b + c - a; }
