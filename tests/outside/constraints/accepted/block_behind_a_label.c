int main(void) { switch (1) { case 1: { int n = 6; return n; } } return 0; }
