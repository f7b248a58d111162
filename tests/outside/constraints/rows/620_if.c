int a[2];
int main(void) { if (a) return 1; return 0; }
