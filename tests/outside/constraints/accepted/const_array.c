const int a[2] = {2, 3};
int main(void) { return a[0] + a[1]; }
