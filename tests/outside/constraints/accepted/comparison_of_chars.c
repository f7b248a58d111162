int main(void) { signed char a = -1; unsigned char b = 255; return a < b && a != b; }
