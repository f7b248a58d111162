enum { A = 1 >> 32 };
int main(void) { return 0; }
