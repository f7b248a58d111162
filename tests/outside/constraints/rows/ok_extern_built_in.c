extern int rv_getbyte(void);
int rv_getbyte(void);
int main(void) { return 0; }
