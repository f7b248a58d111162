void v(void) { }
int main(void) { return 2 * v(); }
