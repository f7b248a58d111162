int main(void) { return 10 - 3 + 2; }
