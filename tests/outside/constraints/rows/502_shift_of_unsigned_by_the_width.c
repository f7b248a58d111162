_Static_assert(1u << 32 == 0, "m");
int main(void) { return 0; }
