int main(void) { return 3 > 2 > 0; }
