int a[262144];
int main(void) { return a[262143]; }
