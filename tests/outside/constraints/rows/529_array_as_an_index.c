int a[2], b[2];
int main(void) { return a[b]; }
