int main(void) { unsigned char a = 200, b = 200; a = a + b; return a; }
