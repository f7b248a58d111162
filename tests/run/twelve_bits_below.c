int main(void) { return 2048 - 2047; }
