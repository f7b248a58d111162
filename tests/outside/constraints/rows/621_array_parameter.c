int f(int p[]) { return 2[p]; }
int main(void) { return 0; }
