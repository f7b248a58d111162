int f(int a);
int f(int a, int b);
int main(void) { return 0; }
