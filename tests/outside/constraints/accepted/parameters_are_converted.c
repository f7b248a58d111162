int f(char c) { return c; }
int main(void) { return f(300); }
