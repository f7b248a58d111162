int f(int a);
int main(void) { return (int)sizeof(f()); }
