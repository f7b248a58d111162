static int x;
extern int x;
static int x = 1;
int main(void) { return x - 1; }
