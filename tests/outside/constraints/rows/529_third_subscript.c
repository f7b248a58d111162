int a[2][2];
int main(void) { return a[0][0][0]; }
