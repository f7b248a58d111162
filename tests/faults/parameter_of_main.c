/* 1: 551 no int main(void) */ int main(int a) { return 0; }
