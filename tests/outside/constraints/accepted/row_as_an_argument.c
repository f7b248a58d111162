int sum(int a[], int n) { int s = 0; while (n) s += a[--n]; return s; }
int main(void) { int a[2][3] = {{1, 2, 3}, {4, 5, 6}}; return sum(a[1], 3); }
