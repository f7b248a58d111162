void rv_putbyte(int c); int main(void) { rv_putbyte(0); return 0; }
