/* 1: 604 left out: volatile, restrict, _Atomic, _Thread_local, auto, register */ volatile int a; int main(void) { return 0; }
