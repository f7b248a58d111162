int main(void) { int a = -7; return a % 2; }
