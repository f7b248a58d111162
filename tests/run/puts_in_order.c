void rv_putbyte(int c); int main(void) { rv_putbyte(65); rv_putbyte(66); rv_putbyte(67); return 68; }
