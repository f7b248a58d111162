static int a[] = {1, 2, 3};
int main(void) { return a[2]; }
