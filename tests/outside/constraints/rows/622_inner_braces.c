int a[2][2][2] = {
    {1, 2, 3, 4},
    {{5, 6}, {7, 8}}};
int main(void) { return 0; }
