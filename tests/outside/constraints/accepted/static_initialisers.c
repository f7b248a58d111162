enum { N = 5 };
int a = N * 8 + sizeof(short), b = 1 ? 3 : 4, c = (char)256, d = -(-2 >> 0 == -2);
int main(void) { return a + b + c + d - 2; }
