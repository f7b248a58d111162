int put(int a[], int i) { a[i] = 5; return 1; }
int main(void) { int b[2]; return put(b, 1); }
