enum { A = (1, 2) };
int main(void) { return A; }
