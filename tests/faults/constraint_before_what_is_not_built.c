/* 2: 511 bad type specifiers */ int main(void) { return -1; }
long long x;
