int a[2][2];
int main(void) { a[0] = 1; return 0; }
