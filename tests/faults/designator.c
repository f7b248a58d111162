/* 1: 401 syntax error */ int a[2] = { [1] = 5 }; int main(void) { return 0; }
