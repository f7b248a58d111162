_Static_assert((unsigned char)256, "m");
int main(void) { return 0; }
