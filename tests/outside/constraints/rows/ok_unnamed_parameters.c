int f(int, char a, int, long b);
int main(void) { return 0; }
