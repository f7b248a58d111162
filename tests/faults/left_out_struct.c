/* 1: 602 left out: struct, union, typedef */ struct s { int a; }; int main(void) { return 0; }
