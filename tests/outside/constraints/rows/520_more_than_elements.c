int a[1] =
    {1, 2};
int main(void) { return 0; }
