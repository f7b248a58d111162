int main(void) { int a = 1; a++; int b = a; b++; long c = b; return (int)c + a; }
