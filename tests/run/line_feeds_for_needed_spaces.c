void
rv_putbyte(int
c);int
main(void){rv_putbyte(33);return
1;}
