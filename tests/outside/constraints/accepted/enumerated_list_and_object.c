enum e { A = 2, B } x = B;
int main(void) { return x + A; }
