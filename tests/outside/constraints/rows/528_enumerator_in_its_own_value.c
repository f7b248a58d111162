enum { A,
    B = B };
int main(void) { return 0; }
