int f(void);
void f(void);
int main(void) { return 0; }
