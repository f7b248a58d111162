/* 1: 401 syntax error */ int main() { return 0; }
