int main(void) {
    int a[1] = {1, 2};
    return a[0];
}
