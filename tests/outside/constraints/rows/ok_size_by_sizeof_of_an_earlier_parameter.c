int f(char c, int n, int p[sizeof n], int q[][sizeof c]);
int main(void) { return 0; }
