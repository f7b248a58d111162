int main(void) { return 00; }
