/* 1: 401 syntax error */ intmain(void) { return 0; }
