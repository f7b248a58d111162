int main(void) { switch (2) { static int n = 3; case 2: return n; } return 4; }
