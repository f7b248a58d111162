int f(const int a[3]);
int f(int const a[]);
int f(const int const a[sizeof(int[3])]) { return a[0]; }
int main(void) { return 0; }
