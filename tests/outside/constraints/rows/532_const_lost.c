int f(int a[]);
const int a[2] = {1, 2};
int main(void) { return f(a); }
