int a[1], b[1u], c['a'], d[(char)257];
int main(void) { return (int)sizeof d - 4; }
