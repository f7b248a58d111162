enum { A = 2, B = A * 3, C = A + B };
int main(void) { return B + C; }
