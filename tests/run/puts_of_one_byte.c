void rv_putbyte(int c); int main(void) { rv_putbyte(42); rv_putbyte(42); rv_putbyte(42); return 42; }
