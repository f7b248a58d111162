/* 1: 607 left out: prefixed or multi-character literal */ int main(void) { return 'ab'; }
