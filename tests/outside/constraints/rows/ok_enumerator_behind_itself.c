enum { A = 1, B = A + 1, C = A + B };
int main(void) { return C - 3; }
