_Static_assert(1 || (2, 3), "m");
int main(void) { return 0; }
