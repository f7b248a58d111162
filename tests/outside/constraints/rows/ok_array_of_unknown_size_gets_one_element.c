int a[];
int b[][3];
int main(void) { a[0] = 1; b[0][2] = 1; return a[0] - b[0][2]; }
