void rv_putbyte(int c); int main(void) { return 0; rv_putbyte(65); }
