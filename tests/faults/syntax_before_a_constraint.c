/* 2: 401 syntax error */ int main(void) { return y; }
int z
