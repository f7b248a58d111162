int a[2];
int main(void) { return (int)sizeof(a + 1); }
