_Static_assert(4294967295u + 1u == 0 && 0u - 1u == 4294967295u && 65536u * 65536u == 0 && -1u == 4294967295u, "m");
int main(void) { return 0; }
