int main(void) { int a = 1071, b = 462; while (b) { int t = a % b; a = b; b = t; } return a; }
