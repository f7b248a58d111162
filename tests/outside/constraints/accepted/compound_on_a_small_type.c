int main(void) { unsigned char a = 250; a += 10; return a; }
