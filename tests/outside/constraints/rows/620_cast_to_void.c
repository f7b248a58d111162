int a[2];
int main(void) { (void)a; return 0; }
