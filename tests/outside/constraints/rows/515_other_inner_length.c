extern int a[][3];
int a[2][4];
int main(void) { return 0; }
