int f(void) { for (int i = 0; ; i++) { for (int j = 0; j < 5; j++) if (i * j == 12) return i + j; } }
int main(void) { return f(); }
