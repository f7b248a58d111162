int f(int a);
int f(int a[]);
int main(void) { return 0; }
