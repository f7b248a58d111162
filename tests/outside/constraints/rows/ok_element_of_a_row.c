int f(int p[][2]) { return p[0][1]; }
int main(void) { int m[1][2] = {{1, 2}}; return f(m) - m[0][1] + "ab"[2]; }
