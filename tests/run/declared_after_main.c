int main(void) { return 0; } void rv_putbyte(int c);
