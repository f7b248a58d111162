int main(void) { int n = 0; for (int i = 0; i < 3; i++) while (1) { n += 2; break; } return n; }
