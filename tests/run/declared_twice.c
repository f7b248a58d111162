void rv_putbyte(int c); void rv_putbyte(int c); int main(void) { return 0; }
