int rv_getbyte(void);
extern void rv_exit(int);
int main(void) { return 0; }
