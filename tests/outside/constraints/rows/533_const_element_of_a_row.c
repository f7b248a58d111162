const int a[2][2] = {{1}};
int main(void) { a[1][0] = 2; return 0; }
