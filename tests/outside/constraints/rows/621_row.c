int a[2][2];
int main(void) { return 1[a[0]]; }
