int a[2];
int main(void) { for (a; ; ) return 1; }
