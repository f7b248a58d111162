enum e f(void);
int main(void) { return 0; }
