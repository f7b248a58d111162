void v(void) { }
int main(void) { int a = (v(), 0); return a; }
