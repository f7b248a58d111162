/* 1: 528 undeclared name */ int main(void) { rv_putbyte(65); return 0; }
