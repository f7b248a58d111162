int n = 1;
void f(int a) { if (a) return; n = 2; }
int main(void) { f(1); return n; }
