enum { rv_exit };
int main(void) { return 0; }
