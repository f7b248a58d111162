/* 1: 609 left out: long long constant */ int main(void) { return 4294967297; }
