int a = 1;
int f(int a) { return a; }
int main(void) { return f(4); }
