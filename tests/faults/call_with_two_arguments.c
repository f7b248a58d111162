/* 1: 531 wrong number of arguments */ void rv_putbyte(int c); int main(void) { rv_putbyte(1, 2); return 0; }
