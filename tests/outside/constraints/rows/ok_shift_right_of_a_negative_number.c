enum { A = -8 >> 1 };
int main(void) { return A != -4; }
