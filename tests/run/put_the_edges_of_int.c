void rv_putbyte(int c); int main(void) { rv_putbyte(2147483647); rv_putbyte(0 - 2147483647); rv_putbyte(0 - 2147483647 - 1); return 3; }
