/* 2: 552 used but not defined */ int g(void);
int main(void) { return g(); }
