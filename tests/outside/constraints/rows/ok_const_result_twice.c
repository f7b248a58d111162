const int f(void);
int const f(void) { return 0; }
int main(void) { return f(); }
