const int rv_getbyte(void);
int main(void) { return 0; }
