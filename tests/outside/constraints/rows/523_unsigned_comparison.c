_Static_assert(-1 < 1u, "m");
int main(void) { return 0; }
