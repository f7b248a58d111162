int main(void) {
    int n = 1;
    int a[1][1] = {n};
    return a[0][0];
}
