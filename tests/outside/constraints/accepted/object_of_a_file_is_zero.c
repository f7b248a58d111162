int a, b[3];
int main(void) { return a + b[2]; }
