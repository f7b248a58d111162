void rv_putbyte(int c); int main(void) { rv_putbyte('\n'); rv_putbyte('\x41'); rv_putbyte('\101'); rv_putbyte('\a'); rv_putbyte('"'); return '\0'; }
