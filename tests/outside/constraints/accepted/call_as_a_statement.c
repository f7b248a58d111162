int n;
int f(void) { return ++n; }
int main(void) { f(); f(); return n; }
