extern int a;
int main(void) { return a; }
int a = 4;
