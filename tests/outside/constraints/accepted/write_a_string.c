void rv_putbyte(int c);
void put(const char s[]) { for (int i = 0; s[i]; i++) rv_putbyte(s[i]); }
int main(void) { put("hello"); return 0; }
