/* 1: 401 syntax error */ int main(void) { a: return 0; }
