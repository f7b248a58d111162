extern int x;
long x;
int main(void) { return 0; }
