char f(void) { return 300; }
int main(void) { return f(); }
