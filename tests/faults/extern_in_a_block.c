/* 1: 401 syntax error */ int main(void) { extern int a; return 0; }
