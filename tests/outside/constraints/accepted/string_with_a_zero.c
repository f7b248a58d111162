int main(void) { return "ab\0c"[3]; }
