int main(void) { return 1 - 200 + 300 - 400 + 500 - 6; }
