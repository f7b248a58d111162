int main(void) { return 300; }
