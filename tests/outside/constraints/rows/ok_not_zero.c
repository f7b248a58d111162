_Static_assert(-1, "m");
_Static_assert(0x80000000u, "m" "n");
_Static_assert((_Bool)256, "");
_Static_assert('a' == 97 && sizeof(long) == 4 && sizeof 'a' == 4 && (char)-1 == 255, "m");
int main(void) { return 0; }
