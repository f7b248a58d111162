/* 1: 303 constant out of range */ int main(void) { return 18446744073709551617; }
