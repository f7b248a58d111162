enum { A = -1 + 0u };
int main(void) { return 0; }
