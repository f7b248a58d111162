void rv_putbyte(int c); int main(void) { rv_putbyte('H'); return 0; }
