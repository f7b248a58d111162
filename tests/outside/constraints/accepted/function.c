int f(void) { return 5; }
int main(void) { return f(); }
