int f(int a[sizeof b], int b);
int main(void) { return 0; }
