void rv_putbyte(int c); int main(void) { rv_putbyte(1 + (2 + (4 + (8 + (16 + (32)))))); return 1 - (2 - (4 - (8 - (16 - (32 - 2 - 8))))); }
