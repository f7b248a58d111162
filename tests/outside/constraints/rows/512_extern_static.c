int y;
extern
int
static x;
int main(void) { return 0; }
