/* 1: 401 syntax error */ int main(void) { return 0; };
