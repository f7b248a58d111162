int main(void) { return 0 - 2147483647 - 1; }
