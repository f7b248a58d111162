int f(int a);
int f(char a);
int main(void) { return 0; }
