int main(void) { unsigned char a = 200, b = 200; return a + b - 256; }
