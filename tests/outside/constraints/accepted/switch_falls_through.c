int main(void) { int n = 0; switch (1) { case 0: n = 8; case 1: n += 1; case 2: n += 2; default: n += 4; } return n; }
