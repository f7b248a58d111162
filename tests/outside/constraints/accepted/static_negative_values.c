signed char a[3] = {-1, 255, 127}; short b = -1; long c = -1L;
int main(void) { return a[0] == a[1] && a[2] == 127 && b == c; }
