int f(int a[100]) { return sizeof(a); }
int main(void) { int a[1] = {0}; return f(a); }
