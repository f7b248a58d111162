int f(void) { static int n, a[2]; a[n]++; return ++n; }
int main(void) { f(); return f(); }
