_Static_assert(-2147483647 - 1 < 0, "m");
int main(void) { return 0; }
