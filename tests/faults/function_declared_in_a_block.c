/* 1: 401 syntax error */ int main(void) { int f(int a); return 0; }
