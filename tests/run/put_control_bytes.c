void rv_putbyte(int c); int main(void) { rv_putbyte(10); rv_putbyte(13); rv_putbyte(26); rv_putbyte(4); rv_putbyte(127); rv_putbyte(128); return 4; }
