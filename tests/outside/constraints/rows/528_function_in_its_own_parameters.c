int f(int a[sizeof f]);
int main(void) { return 0; }
