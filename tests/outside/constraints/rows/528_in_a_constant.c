enum { A = y };
int main(void) { return 0; }
