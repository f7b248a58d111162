int main(void) { return 256; }
