int main(void) { int a = 256; return (char)a + 1; }
