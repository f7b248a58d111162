enum { A = -3, B };
int main(void) { return A + B - B; }
