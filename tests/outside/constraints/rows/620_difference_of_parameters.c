int f(int p[], int q[]) { return p - q; }
int main(void) { return 0; }
