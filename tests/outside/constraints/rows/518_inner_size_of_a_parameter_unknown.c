int f(int p[2][]);
int main(void) { return 0; }
