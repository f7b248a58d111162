int main(void) { return 0 - 2147483647 - 1 + 2147483647 + 1 + 9; }
