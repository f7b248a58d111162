long enum { A } x;
int main(void) { return 0; }
