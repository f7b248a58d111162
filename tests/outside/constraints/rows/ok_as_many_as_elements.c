int a[2] = {1, 2}, b[2] = {1}, c[2] = {1, 2, };
int main(void) { return b[1]; }
