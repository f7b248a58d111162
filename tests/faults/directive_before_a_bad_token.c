/* 1: 234 #error stop */ #error stop
int main(void) { return 08; }
