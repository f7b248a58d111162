int f(void) { return 0; }
int main(void) { int a[1] = {0}; return f()[a]; }
