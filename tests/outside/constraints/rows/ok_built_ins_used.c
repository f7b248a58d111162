int rv_getbyte(void);
void rv_putbyte(int c);
void rv_exit(int status);
int main(void) { if (rv_getbyte() != -1) rv_putbyte('x'); rv_exit(0); return 1; }
