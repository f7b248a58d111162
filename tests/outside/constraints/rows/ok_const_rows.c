int f(const int a[][3]) { return a[1][2]; }
const int a[2][3] = {{1}};
int main(void) { return f(a); }
