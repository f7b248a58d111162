extern int a[][2];
int f(int p[][2][3]);
int main(void) { return 0; }
