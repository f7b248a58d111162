extern int a[];
int a[3];
int a[2];
int main(void) { return 0; }
