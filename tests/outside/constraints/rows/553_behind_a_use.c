void rv_putbyte(int c);
int main(void) { rv_putbyte(65); return 0; }
void rv_putbyte(int byte) { }
