int rv_getbyte(int c);
int main(void) { return 0; }
