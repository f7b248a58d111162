int length(const char s[]) { int n = 0; while (s[n]) n++; return n; }
int main(void) { return length("abc"); }
