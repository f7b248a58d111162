int rv_getbyte(void);
int c;
int number(void) { int n = 0; for (; c >= '0' && c <= '9'; c = rv_getbyte()) n = n * 10 + c - '0'; return n; }
int product(void) { int n = number(); while (c == '*') { c = rv_getbyte(); n *= number(); } return n; }
int main(void) { c = rv_getbyte(); int n = product(); while (c == '+') { c = rv_getbyte(); n += product(); } return n; }
