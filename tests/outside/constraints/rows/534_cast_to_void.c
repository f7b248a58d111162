int main(void) { int a = (void)1; return a; }
