int main(void) { return 0; return 1; }
