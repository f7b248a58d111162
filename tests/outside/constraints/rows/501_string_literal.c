_Static_assert("abc", "m");
int main(void) { return 0; }
