enum { A = 0 ? 1 / 0 : 3 };
int main(void) { return A - 3; }
