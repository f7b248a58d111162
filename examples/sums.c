void rv_putbyte(int c);

int main(void) {
    rv_putbyte(50 + 2);
    rv_putbyte(40 + 3);
    rv_putbyte(40 + 11);
    rv_putbyte(64 - 3);
    rv_putbyte(100 - 45);
    rv_putbyte(4 + 3 + 2 + 1);
    rv_putbyte(80 - 8);
    rv_putbyte(100 + 10 - 5);
    rv_putbyte(1 + 2 + 30);
    rv_putbyte(20 - 10);
    return 4 + 3;
}
