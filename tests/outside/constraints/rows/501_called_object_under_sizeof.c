int x;
int a[sizeof x()];
int main(void) { return 0; }
