enum { A, B = A + 2147483647, C };
int main(void) { return 0; }
