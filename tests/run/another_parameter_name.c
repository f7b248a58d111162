void rv_putbyte(int d); int main(void) { return 0; }
