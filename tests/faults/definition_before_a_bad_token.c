/* 2: 301 not a token */ #define X
int main(void) { return 08; }
