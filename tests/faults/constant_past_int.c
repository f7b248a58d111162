/* 1: 609 left out: long long constant */ int main(void) { return 2147483648; }
