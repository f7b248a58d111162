enum { A = -65536 * 32768 };
int main(void) { return A != -2147483647 - 1; }
