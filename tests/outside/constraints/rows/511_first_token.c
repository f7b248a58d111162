int y;
static
const
long
long x;
int main(void) { return 0; }
