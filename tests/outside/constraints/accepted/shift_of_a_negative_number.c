int main(void) { int a = -8; return a >> 1; }
