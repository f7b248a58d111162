int main(void) { int a = 1; return a ? a = 4, a + 1 : 0; }
