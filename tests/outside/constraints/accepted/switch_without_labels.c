int main(void) { int n = 5; switch (n) { n = 6; } return n; }
