_Static_assert(2147483646 + 1, "m");
int main(void) { return 0; }
