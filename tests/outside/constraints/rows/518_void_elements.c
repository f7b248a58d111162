void a[3];
int main(void) { return 0; }
