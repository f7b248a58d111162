/* 2: 523 static assertion failed */ int main(void) { return 0; }
_Static_assert(sizeof(int) == 8, "m");
