int main(void) { if (0) "abc"[0] = 'x'; return 0; }
