enum { A = 1 };
int main(void) { enum { A }; return A; }
