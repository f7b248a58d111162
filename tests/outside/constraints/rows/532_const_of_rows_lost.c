int f(int a[][3]);
const int a[2][3] = {{1}};
int main(void) { return f(a); }
