/* 1: 551 no int main(void) */ void rv_putbyte(int c);
