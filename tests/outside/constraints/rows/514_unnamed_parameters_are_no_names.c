int f(int, char a, int, long a);
int main(void) { return 0; }
