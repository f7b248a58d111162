int x;
_Static_assert(
    0,
    "m");
int main(void) { return 0; }
