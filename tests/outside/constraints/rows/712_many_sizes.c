extern long a[65536][65536][65536];
int main(void) { return 0; }
