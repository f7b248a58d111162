int main(void) { while (0) return 2; return 1; }
