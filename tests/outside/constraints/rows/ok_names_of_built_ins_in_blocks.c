int f(int rv_getbyte) { return rv_getbyte; }
int main(void) {
    enum { rv_exit = 3 };
    static int rv_putbyte = -3;
    return f(rv_exit + rv_putbyte);
}
