int a[2];
int main(void) { return (1 ? a : a)[0]; }
