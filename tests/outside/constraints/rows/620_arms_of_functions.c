int f(void) { return 0; }
int main(void) { 1 ? f : f; return 0; }
