enum { A = 1u / 0u };
int main(void) { return 0; }
