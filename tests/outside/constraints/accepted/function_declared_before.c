int f(int a);
int main(void) { return f(5); }
int f(int a) { return a + 1; }
