long f(long a, int b) { return a * b - 1L; }
int main(void) { return f(100000, 20000) == 1999999999; }
