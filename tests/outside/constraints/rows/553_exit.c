extern void rv_exit(int status) { for (;;) ; }
int main(void) { return 0; }
