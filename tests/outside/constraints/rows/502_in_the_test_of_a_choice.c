_Static_assert(65535 * 65535 ? 1 : 2, "m");
int main(void) { return 0; }
