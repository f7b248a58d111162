_Static_assert(1
    / 0, "m");
int main(void) { return 0; }
