int main(void) { unsigned short s = 65537; return s; }
