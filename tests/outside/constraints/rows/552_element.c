extern int a[3];
int main(void) { return a[1]; }
