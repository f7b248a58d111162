enum { A = g() };
int main(void) { return 0; }
