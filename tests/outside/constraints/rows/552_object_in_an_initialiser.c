extern int x;
int main(void) {
    int a[2] = {0, x};
    return a[0];
}
