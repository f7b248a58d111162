int rv_getbyte(void);
int main(void) { int n = -1; do n++; while (rv_getbyte() >= 0); return n - 1; }
