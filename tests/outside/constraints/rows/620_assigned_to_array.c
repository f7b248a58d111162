int a[2];
int main(void) { a = 1; return 0; }
