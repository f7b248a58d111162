void v(void) { }
int main(void) { 1 ? v() : (void)2; return 0; }
