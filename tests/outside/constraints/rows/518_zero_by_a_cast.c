int a[(unsigned char)256];
int main(void) { return 0; }
