int main(void) { int n = 0; switch (1) { case 1: n = 1; break; case 2: n = 2; } return n; }
