int f(char a[]) { return a[0]; }
int g(const char a[]) { return a[3]; }
int main(void) { return f("") + g("abc") + f("abc") - 'a'; }
