int main(void) { int a = 7; if (a < 3) return 1; else if (a < 6) return 2; else if (a < 9) return 3; else return 4; }
