const int a[2] = {1, 2};
int main(void) { a[0] = 2; return 0; }
