enum { A } A;
int main(void) { return 0; }
