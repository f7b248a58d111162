extern int x = 0;
int x;
int main(void) { return x; }
