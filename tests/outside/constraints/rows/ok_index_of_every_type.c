_Bool b = 1;
unsigned long u = 1;
signed char c = 1;
enum e { ONE = 1 } e = ONE;
int main(void) { int a[2] = {1, 0}; return a[b] + a[u] + a[c] + a[e] + a[ONE] + a[b == u]; }
