void rv_putbyte(int c); int main(void) { return 7; }
