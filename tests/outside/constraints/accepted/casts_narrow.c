int main(void) { int a = 300; return (char)a; }
