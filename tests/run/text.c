void rv_putbyte(int c); int main(void) { rv_putbyte(72); rv_putbyte(100 + 5); rv_putbyte(40 - 7); rv_putbyte(10); return 4; }
