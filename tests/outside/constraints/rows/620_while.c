int main(void) { while ("abc") return 1; return 0; }
