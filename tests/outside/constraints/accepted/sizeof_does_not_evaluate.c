int main(void) { int a = 1; int b = sizeof(a++); return a + b - 4; }
