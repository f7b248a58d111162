int a[2];
int main(void) { return (int)sizeof(1, a); }
