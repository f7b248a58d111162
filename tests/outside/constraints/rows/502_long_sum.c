_Static_assert(2147483647L + 1L, "m");
int main(void) { return 0; }
