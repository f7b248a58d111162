int a[3], b[2][2];
int f(const char s[]) { return (s)[0]; }
int main(void) { return (int)sizeof(a)[0] - 4 + (a)[1] + ((b)[1])[0] + ("abc")[3] + f(("")) + f(((""))); }
