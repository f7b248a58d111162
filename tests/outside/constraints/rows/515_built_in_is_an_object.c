int rv_getbyte;
int main(void) { return 0; }
