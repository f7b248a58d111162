int f(int a[]);
int f(const int a[]);
int main(void) { return 0; }
