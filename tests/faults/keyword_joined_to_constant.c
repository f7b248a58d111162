/* 1: 528 undeclared name */ int main(void) { return0; }
