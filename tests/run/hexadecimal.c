int main(void) { return 0x1; }
