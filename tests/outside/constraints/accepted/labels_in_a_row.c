int main(void) { int n = 0; switch (3) { case 1: case 2: case 3: n = 4; } return n; }
