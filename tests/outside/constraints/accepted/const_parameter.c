int f(const int a) { return a + 1; }
int main(void) { return f(4); }
