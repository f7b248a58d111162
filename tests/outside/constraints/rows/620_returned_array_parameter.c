int f(int p[]) { return p; }
int main(void) { return 0; }
