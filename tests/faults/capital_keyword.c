/* 1: 401 syntax error */ int main(void) { RETURN 0; }
