int a[2];
int f(int n) { return n; }
int main(void) {
    return f(
        a);
}
