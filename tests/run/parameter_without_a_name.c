void rv_putbyte(int); int main(void) { return 0; }
