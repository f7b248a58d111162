enum { A };
int main(void) { A = 1; return 0; }
