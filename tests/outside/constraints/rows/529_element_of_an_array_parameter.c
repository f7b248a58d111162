int f(int p[]) { return p[0][0]; }
int main(void) { return 0; }
