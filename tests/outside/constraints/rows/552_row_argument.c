extern int x[2][2];
int f(int p[]) { return p[0]; }
int main(void) { return f(x[1]); }
