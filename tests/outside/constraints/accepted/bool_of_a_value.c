int main(void) { _Bool b = 256; return b; }
