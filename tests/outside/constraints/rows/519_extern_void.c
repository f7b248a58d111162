extern void x;
int main(void) { return 0; }
