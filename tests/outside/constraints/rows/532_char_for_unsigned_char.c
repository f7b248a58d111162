int f(unsigned char a[]);
int main(void) { return f("abc"); }
