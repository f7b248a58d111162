void v(void) { }
int main(void) { v() = 1; return 0; }
