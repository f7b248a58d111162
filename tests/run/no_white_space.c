void rv_putbyte(int c);int main(void){rv_putbyte(70+2);return 44-2;}
