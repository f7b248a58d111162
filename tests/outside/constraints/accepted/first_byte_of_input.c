int rv_getbyte(void);
int main(void) { return rv_getbyte(); }
