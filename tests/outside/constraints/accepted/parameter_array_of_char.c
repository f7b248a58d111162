int f(char a[], char b) { a[0] += b; return a[0]; }
int main(void) { char s[] = "d"; return f(s, 5); }
