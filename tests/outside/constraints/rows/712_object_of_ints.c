int a[262145];
int main(void) { return 0; }
