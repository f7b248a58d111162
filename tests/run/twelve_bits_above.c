int main(void) { return 4096 - 4095 + 2049 - 2048; }
