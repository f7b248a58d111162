/* 1: 401 syntax error */ int (x); int main(void) { return 0; }
