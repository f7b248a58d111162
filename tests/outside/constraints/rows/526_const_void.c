int f(const void);
int main(void) { return 0; }
