int main(void) { int a = 3; return - -a + +a - - + -2; }
