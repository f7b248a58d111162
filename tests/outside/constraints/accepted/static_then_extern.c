static int a = 2;
extern int a;
int main(void) { return a; }
