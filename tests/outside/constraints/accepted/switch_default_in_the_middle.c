int main(void) { int n = 0; switch (9) { case 0: n += 1; default: n += 2; case 1: n += 4; break; case 2: n += 8; } return n; }
