_Static_assert(1 ? 1 : 2147483647 + 1, "m");
int main(void) { return 0; }
