int f(int a[]);
int main(void) {
    int x = 1;
    return f(
        x);
}
