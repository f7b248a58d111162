int y;
static
unsigned
;
int main(void) { return 0; }
