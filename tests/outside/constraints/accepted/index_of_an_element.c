int main(void) { int a[3] = {2, 5, 7}; return a[a[0]]; }
