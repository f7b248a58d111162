int main(void) { return 2147483647 + 1u > 0 ? sizeof 0xffffffff : 0; }
