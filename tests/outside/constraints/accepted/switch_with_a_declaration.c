int main(void) { switch (2) { int n; case 1: return 1; case 2: n = 8; return n; } return 0; }
