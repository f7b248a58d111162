int main(void) { int a = 5; return (a << 3) + (a << 1 >> 1) - (a >> 2) + 0; }
