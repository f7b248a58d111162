extern int x;
int x;
extern int x;
int main(void) { return x; }
