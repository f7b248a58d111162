enum { A = -2147483647 - 1, B = (int)4294967295u, C };
int main(void) { return A != -2147483647 - 1 || B != -1 || C; }
