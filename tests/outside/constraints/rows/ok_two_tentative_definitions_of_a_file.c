static int a;
static int a;
int main(void) { return a; }
