extern char a[1025][32][32];
int main(void) { return 0; }
