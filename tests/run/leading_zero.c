int main(void) { return 01; }
