int rv_getbyte(void) { return 1; }
int main(void) { return 0; }
