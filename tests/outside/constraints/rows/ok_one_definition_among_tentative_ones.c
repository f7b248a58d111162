int x;
int x = 0;
int x;
extern int x;
int main(void) { return x; }
