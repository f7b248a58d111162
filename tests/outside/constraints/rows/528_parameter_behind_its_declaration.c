int f(int a);
int n = sizeof(a);
int main(void) { return 0; }
