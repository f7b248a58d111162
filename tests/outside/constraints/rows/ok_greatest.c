enum { A = 2147483646, B };
int main(void) { return B != 2147483647; }
