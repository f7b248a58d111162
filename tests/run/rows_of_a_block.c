int main(void) { int a[2][2] = { { 1 } }; return 0; }
