int f(int a, char b[]), a, b[2];
int main(void) { return a + b[1]; }
