int main(void) { int a = 0, b = 2; return (a && b) + 2 * (a || b) + 4 * !a + 8 * !b; }
