static int used(void) { return 1; }
static int unused(void) { return 2; }
static int only_itself(int n) { return n == 0 ? 0 : only_itself(n - 1); }

int main(void) { return used(); }
