/* z.c:101: 528 undeclared name */ #line 100 "z.c"
int x = __LINE__;
int main(void) { return y; }
