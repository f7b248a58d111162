void rv_putbyte(int c);
int main(void) { rv_putbyte(65 + 256); return 0; }
