void v(void) { }
int main(void) { 1 ? (void)1 : 0 ? 2 : v(); return 0; }
