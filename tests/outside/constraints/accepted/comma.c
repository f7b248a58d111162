int main(void) { int a; return a = 1, a += 1, a + 1; }
