int main(void) { int a = 1; { int a = 2; a++; } return a; }
