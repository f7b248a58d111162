static int a[];
static int a[3];
int main(void) { return a[0]; }
