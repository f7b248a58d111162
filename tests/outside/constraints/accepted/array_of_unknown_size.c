int a[];
int main(void) { a[0] = 9; return a[0]; }
