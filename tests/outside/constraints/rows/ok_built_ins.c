int rv_getbyte(void);
void rv_putbyte(int);
void rv_putbyte(const int byte);
extern void rv_exit(int status), rv_exit(int);
int main(void) { rv_exit(0); return 1; }
