/* 1: 401 syntax error */ int f(int p[const 3]); int main(void) { return 0; }
