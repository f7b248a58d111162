int main(void) { int a = 1, b = a + 1, c[2] = {1, 2}, d; d = c[1]; return a + b + c[0] + d; }
