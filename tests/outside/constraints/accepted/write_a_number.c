void rv_putbyte(int c);
void put(int n) { if (n >= 10) put(n / 10); rv_putbyte('0' + n % 10); }
int main(void) { put(1234); return 0; }
