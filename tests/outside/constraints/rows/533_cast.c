int main(void) { int a = 1; ((int)a) = 3; return a; }
