_Static_assert((0 && 2147483647 + 1) == 0 && (1 || 1 << 32) == 1, "m");
int main(void) { return 0; }
