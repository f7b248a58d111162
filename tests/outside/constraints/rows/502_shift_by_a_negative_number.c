enum { A = 1 << -1 };
int main(void) { return 0; }
