unsigned next(unsigned x) { return x * 1103515245u + 12345u; }
int main(void) { unsigned x = 1; for (int i = 0; i < 10; i++) x = next(x); return (int)(x >> 24); }
