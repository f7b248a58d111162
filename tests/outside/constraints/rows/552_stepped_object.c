extern int x;
int main(void) { x++; return 0; }
