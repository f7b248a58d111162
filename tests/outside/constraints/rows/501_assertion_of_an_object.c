int n;
_Static_assert(
    n, "m");
int main(void) { return 0; }
