int f(int a[][2]);
int f(int a[][3]);
int main(void) { return 0; }
