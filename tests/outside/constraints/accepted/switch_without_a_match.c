int main(void) { int n = 5; switch (7) { case 1: n = 1; } return n; }
