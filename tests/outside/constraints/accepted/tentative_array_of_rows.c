int a[][2];
int a[2][2];
int main(void) { a[1][1] = 4; return a[1][1]; }
