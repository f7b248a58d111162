int main(void) { int a = 12, b = 10; return (a & b) + (a | b) + (a ^ b) - 1; }
