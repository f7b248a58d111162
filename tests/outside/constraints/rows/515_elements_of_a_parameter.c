int f(int a[]);
int f(long a[]);
int main(void) { return 0; }
