int f(void, int a);
int main(void) { return 0; }
