void rv_putbyte(int c); int main(void) { rv_putbyte(255); rv_putbyte(256); rv_putbyte(257); return 1; }
