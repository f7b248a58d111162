/* 1: 401 syntax error */ int f(int a, ...); int main(void) { return 0; }
