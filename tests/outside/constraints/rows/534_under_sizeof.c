void v(void) { }
int main(void) { int a; return (int)sizeof(a = v()); }
