int main(void) { signed char c = 200; return c == -56; }
