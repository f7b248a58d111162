/* 1: 603 left out: goto */ int main(void) { goto a; a: return 0; }
