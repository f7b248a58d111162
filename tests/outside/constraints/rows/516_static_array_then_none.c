static int a[2];
int a[];
int main(void) { return 0; }
