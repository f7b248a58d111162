int main(void) { long n = 100000; switch (n) { case 100000L: return 2; } return 0; }
