int n = 1;
int a[3] = {
    1,
    2,
    n
};
int main(void) { return a[2]; }
