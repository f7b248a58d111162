enum { A, B = A + 2147483647, C = 'a', D };
int main(void) { return D - 98; }
