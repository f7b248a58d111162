int rv_getbyte(void);
int main(void) { int c, n = 0; while ((c = rv_getbyte()) != -1) if (c >= '0' && c <= '9') n += c - '0'; return n; }
