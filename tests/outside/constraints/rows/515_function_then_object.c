int f(void);
int f;
int main(void) { return 0; }
