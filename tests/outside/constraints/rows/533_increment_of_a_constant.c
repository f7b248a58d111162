int main(void) { 1++; return 0; }
