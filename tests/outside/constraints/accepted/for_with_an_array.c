int main(void) { int n = 0; for (int a[3] = {1, 2, 3}, i = 0; i < 3; i++) n += a[i]; return n; }
