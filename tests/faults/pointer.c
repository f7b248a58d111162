/* 1: 401 syntax error */ int *p; int main(void) { return 0; }
