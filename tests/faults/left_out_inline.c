/* 1: 605 left out: inline, _Noreturn, _Alignas, _Alignof, _Generic */ inline int f(void); int main(void) { return 0; }
