/* 1: 606 left out: floating constant */ int main(void) { return 1.5; }
