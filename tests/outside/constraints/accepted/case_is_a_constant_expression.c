enum { N = 4 };
int main(void) { switch (9) { case N: return 1; case N * 2 + 1: return 2; case 'a': return 3; case sizeof(int) + 1: return 4; case -1: return 5; } return 0; }
