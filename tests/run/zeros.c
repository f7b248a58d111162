int main(void) { return 0 + 0 - 0; }
