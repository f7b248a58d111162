enum { A = sizeof(1 / 0) };
int main(void) { return A - 4; }
