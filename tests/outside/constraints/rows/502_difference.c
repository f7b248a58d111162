_Static_assert(-2147483647 - 2, "m");
int main(void) { return 0; }
