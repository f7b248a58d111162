int main(void) { return 1 - -1; }
