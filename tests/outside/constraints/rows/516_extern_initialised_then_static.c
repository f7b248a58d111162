int x = 1;
static int x;
int main(void) { return 0; }
