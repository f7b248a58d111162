void set(int a[3], int v) { a[1] = v; }
int main(void) { int a[3] = {1, 2, 3}; set(a, 7); return a[1]; }
