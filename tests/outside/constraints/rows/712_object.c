char
    a[1048577];
int main(void) { return 0; }
