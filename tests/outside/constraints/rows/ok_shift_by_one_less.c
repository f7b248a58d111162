enum { A = 1 << 30, B = 1u >> 31 };
int main(void) { return B; }
