int a = 1;
int main(void) { int n = a; { int a = 2; n += a; { int a = 3; n += a; } } return n; }
