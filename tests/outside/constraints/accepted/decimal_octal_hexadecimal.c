int main(void) { return 10 + 010 + 0x8; }
