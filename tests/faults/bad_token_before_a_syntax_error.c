/* 2: 301 not a token */ int main(void) { return return
08; }
