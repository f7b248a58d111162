int main(void) { int n = 0; for (int i = 0; i < 5; i++) for (int j = 0; j < 5; j++) n++; return n; }
