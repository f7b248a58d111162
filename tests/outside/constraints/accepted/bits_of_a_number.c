int main(void) { unsigned x = 0x12345678u | 0x8080u; int n = 0; for (; x; x &= x - 1) n++; return n + 1; }
