enum e { A } e;
int main(void) { enum main { B } A = B; return A + e; }
