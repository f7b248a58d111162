int a[2][2] = {0};
int main(void) { return 0; }
