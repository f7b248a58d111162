int main(void) { return 20 - 10 - 7; }
