int main(void) { int a = -1; return (int)(unsigned char)(signed char)a; }
