/* 1: 517 defined twice */ int main(void) { return 0; } int main(void) { return 0; }
