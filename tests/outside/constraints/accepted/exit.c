void rv_putbyte(int c);
void rv_exit(int status);
void f(void) { rv_putbyte('x'); rv_exit(9); }
int main(void) { f(); return 1; }
