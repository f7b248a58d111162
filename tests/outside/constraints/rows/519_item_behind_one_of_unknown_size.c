static int a[2],
    b[], c[2];
int main(void) { return 0; }
