int main(void) { char c = 1; return c << 3L; }
