int main(void) { return 100 - 30 - 20; }
