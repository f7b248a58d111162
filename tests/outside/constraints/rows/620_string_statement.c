int main(void) { "abc"; return 0; }
