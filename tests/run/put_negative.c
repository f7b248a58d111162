void rv_putbyte(int c); int main(void) { rv_putbyte(0 - 1); rv_putbyte(0 - 128); rv_putbyte(0 - 255); rv_putbyte(0 - 256); return 2; }
