int f(int rv_exit) { return rv_exit; }
int main(void) { int rv_getbyte = 1; return f(rv_getbyte + 2); }
