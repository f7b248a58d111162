int a[2];
int main(void) { (int[2])a; return 0; }
