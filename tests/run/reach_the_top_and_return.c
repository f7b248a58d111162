int main(void) { return 2147483646 + 1 - 2147483647 + 5; }
