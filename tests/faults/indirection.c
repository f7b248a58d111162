/* 1: 401 syntax error */ int main(void) { int a = 1; return *a; }
