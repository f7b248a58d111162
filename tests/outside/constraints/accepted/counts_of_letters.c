int rv_getbyte(void);
int counts[256];
int main(void) { for (int c; (c = rv_getbyte()) != -1; counts[c]++) ; return counts['a']; }
