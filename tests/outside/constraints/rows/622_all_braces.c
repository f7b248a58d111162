int a[2][2] =
    {1, 2, 3, 4};
int main(void) { return 0; }
