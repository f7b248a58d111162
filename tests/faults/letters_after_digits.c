/* 1: 301 not a token */ int main(void) { return 1a; }
