int rv_getbyte(void);
void rv_putbyte(int c);
void rest(void) { int c = rv_getbyte(); if (c != -1) { rest(); rv_putbyte(c); } }
int main(void) { rest(); return 0; }
