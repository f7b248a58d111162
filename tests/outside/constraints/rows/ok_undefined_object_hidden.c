extern int x;
int main(void) { int x = 0; return x; }
