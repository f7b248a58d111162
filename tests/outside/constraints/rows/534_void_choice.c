void v(void) { }
int main(void) { int a; a = (1 ? v() : v()); return a; }
