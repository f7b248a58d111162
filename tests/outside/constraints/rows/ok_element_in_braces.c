int a[2] = {{1}, {2, }};
int main(void) { return a[0] + a[1] - 3; }
