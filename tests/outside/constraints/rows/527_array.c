int f(int []) { return 0; }
int main(void) { return 0; }
