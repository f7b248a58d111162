static f(void) { return 0; }
int main(void) { return f(); }
