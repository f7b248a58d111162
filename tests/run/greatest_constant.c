int main(void) { return 2147483647; }
