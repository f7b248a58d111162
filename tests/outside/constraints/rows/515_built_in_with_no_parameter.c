void rv_exit(void);
int main(void) { return 0; }
