/* 1: 528 undeclared name */ void rv_putbyte(int c); int main(void) { rv_putbytes(65); return 0; }
