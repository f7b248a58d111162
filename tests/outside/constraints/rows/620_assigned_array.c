int a[2], b[2];
int main(void) {
    int x = 0;
    x =
        a;
    return x;
}
