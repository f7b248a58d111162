int a[2];
int main(void) { return a[main]; }
