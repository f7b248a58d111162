int a[2];
int main(void) {
    int x =
        a;
    return x;
}
