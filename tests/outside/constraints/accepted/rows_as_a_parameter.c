int sum(int a[][3], int n) { int s = 0; for (int i = 0; i < n; i++) for (int j = 0; j < 3; j++) s += a[i][j]; return s; }
int main(void) { int a[2][3] = {{1, 2, 3}, {4, 5, 6}}; return sum(a, 2); }
