int rv_getbyte(void);
void rv_putbyte(int c);
int main(void) { int c; while ((c = rv_getbyte()) != -1) rv_putbyte(c); return 0; }
