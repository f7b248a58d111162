int main(void) { int a = 256; return !!a; }
