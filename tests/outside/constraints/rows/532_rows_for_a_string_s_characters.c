int f(const char p[]);
char s[2][4];
int main(void) { return f(s); }
