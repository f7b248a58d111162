enum { A, B, C = 10, D };
int main(void) { return A + B + D; }
