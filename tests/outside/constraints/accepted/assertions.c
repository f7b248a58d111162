_Static_assert(1, "file");
int main(void) { _Static_assert(sizeof(int) == 4, "block"); return 0; }
