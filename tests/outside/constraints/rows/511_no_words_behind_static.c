int y;
static
x;
int main(void) { return 0; }
