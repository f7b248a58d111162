extern int a[2];
int a[] = {1, 2, 3};
int main(void) { return 0; }
