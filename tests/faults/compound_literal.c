/* 1: 401 syntax error */ int main(void) { return (int){1}; }
